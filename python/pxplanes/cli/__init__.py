"""The command `pxplanes`: each of its words is a module here, and `frame` runs them."""
