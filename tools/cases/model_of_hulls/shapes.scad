linear_extrude(3) offset(r=2,$fn=8) square([8,4]);
translate([14,0,0]) linear_extrude(height=5,twist=60,slices=4) square([4,3],center=true);
translate([0,12,0]) hull(){ difference(){ cube(6); translate([-1,-1,3]) cube(8);} translate([8,2,0]) cube(2);}
