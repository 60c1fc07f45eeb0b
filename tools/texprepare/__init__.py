"""What tools/prepare.py is made of: it makes textures of a folder of images."""
