"""A web page to look into a folder of textures: python3 -m texcache.viewer FOLDER. It needs numpy, Pillow and Leaflet.

The page shows all files, zooms into one down to single texels, and notices within two seconds that a file was replaced.
The same server answers the IIIF Image API 3.0, level 0. examples/viewer/README.md has pictures.
"""
