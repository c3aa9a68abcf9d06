linear_extrude(5) polygon([[0,0],[12,0],[12,4],[4,4],[4,10],[0,10]]);
translate([16,0,0]) linear_extrude(height=6,scale=0.4) difference(){ square([8,6],center=true); circle(r=1.5,$fn=8); }
translate([0,14,0]) linear_extrude(4,center=true) intersection(){ circle(5,$fn=10); translate([2,0]) square(8,center=true); }
translate([14,14,0]) linear_extrude(height=7,scale=0) circle(4,$fn=5);
translate([24,10,0]) linear_extrude(3) hull(){ circle(1,$fn=8); translate([4,2]) square(2); }
translate([24,18,0]) linear_extrude(3) minkowski(){ circle(1,$fn=8); square([5,3]); }
