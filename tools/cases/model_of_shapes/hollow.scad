difference(){ cube(10,center=true); cube(6,center=true); translate([0,-20,0]) cube([2,40,2],center=true);}
translate([14,0,0]) difference(){ cube(10,center=true); sphere(4,$fn=8); }
