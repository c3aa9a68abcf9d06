rotate_extrude($fn=14) translate([8,0]) circle(3,$fn=6);
translate([0,0,8]) rotate_extrude(angle=250,$fn=9) translate([3,0]) square([2,3]);
translate([20,0,0]) rotate_extrude($fn=7) polygon([[0,0],[6,0],[7,4],[2,9],[0,9]]);
translate([20,0,-12]) rotate_extrude($fn=7) polygon([[0,0],[0,1],[6,6]]);
