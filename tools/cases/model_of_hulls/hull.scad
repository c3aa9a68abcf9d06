$fn=8; hull(){ cube([10,6,2]); translate([5,3,9]) sphere(3); }
translate([15,0,0]) hull(){ cylinder(r=2,h=1); translate([6,4,0]) cylinder(r=1,h=4); }
