// The scene of cases/drilled_block for POV-Ray, which draws its depths as grey: docs/COMPARE.md.
#version 3.7;
global_settings { assumed_gamma 1 }
#declare W = 64;
#declare H = 48;
#declare FAR = 4095;                 // the far limit, and the depth of the background
#ifndef (SHIFT) #declare SHIFT = 0; #end

// Rays are parallel, and go through the whole places (x, y): pixel (0, 0) is at x 0, y 0.
// POV-Ray's y grows upwards, so our y is its -y. SHIFT moves the rays to the right and down.
camera {
  orthographic
  location <(W - 1) / 2 + SHIFT, -(H - 1) / 2 - SHIFT, -1>
  direction z
  right W * x
  up H * y
}
background { rgb FAR / 65535 }

// The half-spaces of docs/PICTURE.md. A side passes half a pixel outside of the last place that it
// keeps, so that no ray runs along it.
#macro Half(A, B, D, C) plane { <A, -B, D> / vlength(<A, -B, D>), C / vlength(<A, -B, D>) } #end
#macro Front(A, B, C) Half(A, B, -1, -(C)) #end
#macro Back(A, B, C) Half(-(A), -(B), 1, C) #end
#macro Side(A, B, C) Half(-(A), -(B), 0, (C) + 0.5) #end
#macro Near() Half(0, 0, -1, 0) #end

#declare Block = intersection {
  Near() Side(1, 0, -8) Side(-1, 0, 55) Side(0, 1, -8) Side(0, -1, 39)
  Front(0, 0, 100) Back(0, 0, 900)
}
#declare Hole = intersection {
  Near() Side(1, 0, -24) Side(-1, 0, 39) Side(0, 1, -16) Side(0, -1, 31) Back(0, 0, FAR)
}
#declare Cut = intersection { Near() Back(10, 0, 0) Back(0, 0, FAR) }

difference {
  object { Block }
  object { Hole }
  object { Cut }
  pigment { function { z / 65535 } color_map { [0 rgb 0] [1 rgb 1] } }
  finish { ambient 0 diffuse 0 emission 1 }
}
