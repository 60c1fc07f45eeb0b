/* scene.h: what the renderer shows. Reads a scene of textured planes and balls, and finds where rays meet them. Nothing in
 * here calls texcache. */
#ifndef SCENE_H
#define SCENE_H

#include <math.h>
#include <stdbool.h>
#include <stdio.h>
#include <stdlib.h>
#include <string.h>

typedef struct vec {
    double x, y, z;
} vec;

static vec sub(vec a, vec b) { return (vec){a.x - b.x, a.y - b.y, a.z - b.z}; }
static vec times(vec a, double k) { return (vec){a.x * k, a.y * k, a.z * k}; }
static double dot(vec a, vec b) { return a.x * b.x + a.y * b.y + a.z * b.z; }
static vec unit(vec a) { return times(a, 1 / sqrt(dot(a, a))); }

/* A rectangle or a ball, and its texture. */
typedef struct object {
    bool is_ball;
    vec at;                 /* the corner of a rectangle, or the middle of a ball */
    vec right, down;        /* the sides of a rectangle, at right angles */
    double radius;
    double across, along;   /* how often the texture repeats along each side */
    char texture[1024];     /* its path */
} object;

enum { MOST_OBJECTS = 256 };

typedef struct scene {
    object objects[MOST_OBJECTS];
    int count;
} scene;

static void fail(const char *what, const char *why)
{
    fprintf(stderr, "renderer: %s: %s\n", what, why);
    exit(1);
}

/* ---- the text of a scene */

/* Reads the numbers of a line, and the path behind them. Returns whether all of it is there. */
static bool read_object(const char *line, object *o)
{
    char end[2] = "";
    *o = (object){.across = 1, .along = 1};
    if (sscanf(line, " plane %lf %lf %lf %lf %lf %lf %lf %lf %lf %lf %lf %1023[^\n]%1s", &o->at.x, &o->at.y, &o->at.z,
               &o->right.x, &o->right.y, &o->right.z, &o->down.x, &o->down.y, &o->down.z, &o->across, &o->along, o->texture,
               end) == 12)
        return dot(o->right, o->right) > 0 && dot(o->down, o->down) > 0;
    o->is_ball = true;
    return sscanf(line, " ball %lf %lf %lf %lf %1023[^\n]%1s", &o->at.x, &o->at.y, &o->at.z, &o->radius, o->texture, end) == 5
           && o->radius > 0;
}

/* Reads a scene. Empty lines and those that begin with # are left out. */
static void read_scene(const char *path, scene *to)
{
    char line[2048], where[1100];
    FILE *from = fopen(path, "r");
    if (!from) fail(path, "the scene cannot be opened");
    to->count = 0;
    for (int number = 1; fgets(line, sizeof line, from); number++) {
        char first = line[strspn(line, " \t\r\n")];
        if (!first || first == '#') continue;
        snprintf(where, sizeof where, "%.1000s, line %d", path, number);
        if (to->count == MOST_OBJECTS) fail(where, "a scene has at most 256 objects");
        if (!read_object(line, &to->objects[to->count++]))
            fail(where, "this is no `plane` with 11 numbers and a path, and no `ball` with 4 numbers and a path");
    }
    fclose(from);
}

/* ---- rays, which all begin at the eye, 0 0 0 */

/* Where a ray meets the endless plane of a rectangle: how far it is, and the coordinates there, 0 to 1 inside. */
static bool meets_plane(const object *p, vec ray, double *far, double *u, double *v)
{
    vec right = p->right, down = p->down;
    vec normal = {right.y * down.z - right.z * down.y, right.z * down.x - right.x * down.z,
                  right.x * down.y - right.y * down.x};
    double slope = dot(ray, normal);
    if (fabs(slope) < 1e-9) return false;
    *far = dot(p->at, normal) / slope;
    vec at = sub(times(ray, *far), p->at);
    *u = dot(at, right) / dot(right, right);
    *v = dot(at, down) / dot(down, down);
    return *far > 1e-6;
}

/* Where a ray meets a ball: its longitude and latitude as coordinates. A ray that passes by is brought to the rim if
 * `brings` is set: the neighbour of a pixel at the rim needs coordinates too. */
static bool meets_ball(const object *ball, vec ray, bool brings, double *far, double *u, double *v)
{
    double middle = dot(ray, ball->at), beside = dot(ball->at, ball->at) - middle * middle;
    double left = ball->radius * ball->radius - beside;
    if (left < 0 && !brings) return false;
    *far = middle - sqrt(left < 0 ? 0 : left);
    vec at = unit(sub(times(ray, *far), ball->at));
    *u = 0.5 + atan2(at.x, -at.z) / (2 * M_PI);
    *v = acos(at.y < -1 ? -1 : at.y > 1 ? 1 : at.y) / M_PI;
    return *far > 1e-6;
}

/* The texture coordinates at which a ray meets an object, also beyond the object's border. */
static void place_on(const object *o, vec ray, double *s, double *t)
{
    double far;
    *s = *t = 0;
    if (o->is_ball) meets_ball(o, ray, true, &far, s, t);
    else if (!meets_plane(o, ray, &far, s, t)) return;
    *s *= o->across;
    *t *= o->along;
}

/* The first object that a ray meets, and how far it is; or NULL. */
static const object *first_met(const scene *in, vec ray, double *far)
{
    const object *found = NULL;
    double at, u, v;
    *far = 1e30;
    for (const object *o = in->objects; o < in->objects + in->count; o++) {
        bool meets = o->is_ball ? meets_ball(o, ray, false, &at, &u, &v)
                                : meets_plane(o, ray, &at, &u, &v) && u >= 0 && u <= 1 && v >= 0 && v <= 1;
        if (!meets || at >= *far) continue;
        found = o;
        *far = at;
    }
    return found;
}

/* How bright an object is where a ray meets it. */
static double brightness(const object *o, vec ray, double far)
{
    static const vec light = {-0.5, 0.7, -0.5};
    if (!o->is_ball) return 1 / (1 + far * 0.03);
    double facing = dot(unit(sub(times(ray, far), o->at)), unit(light));
    return 0.35 + 0.65 * (facing < 0 ? 0 : facing);
}

#endif
