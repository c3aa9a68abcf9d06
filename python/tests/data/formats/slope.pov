// Each pixel glows with (3x + 16y) / 256, which a float of 16 bits holds exactly: made exr by
// povray +Islope.pov +Oslope.exr +W20 +H12 +FE -D -A
#version 3.7;
global_settings { assumed_gamma 1 }
camera { orthographic location <9.5, -5.5, -1> direction z right 20 * x up 12 * y }
plane { z, 0
  pigment { function { (3 * x - 16 * y) / 256 } color_map { [0 rgb 0] [1 rgb 1] } }
  finish { ambient 0 diffuse 0 emission 1 } }
