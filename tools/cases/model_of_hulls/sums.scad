minkowski(){ cube([8,5,2]); sphere(2,$fn=8); }
translate([14,0,0]) minkowski(){ union(){ cube([6,2,2]); cube([2,6,2]); } cylinder(r=1,h=1,$fn=6); }
translate([0,14,0]) resize([12,0,3],auto=[false,true,false]) rotate([0,0,30]) cube([4,3,2]);
