// Convex shapes, each turned in three ways: what the files of convex.tar.gz have.
// make_files exports them by OpenSCAD, six digits to a number.
shape = 0;
turn = 0;
turns = [[[0, 0, 0], [0, 0, 0]], [[0, 0, 0], [17, 31, 53]], [[100, -40, 3], [71, 5, 211]]];
module one() {
  if (shape == 0) cube([7, 11, 13]);
  if (shape == 1) cube([40, 30, 0.8]);
  if (shape == 2) cylinder(h = 20, r = 4, $fn = 12);
  if (shape == 3) cylinder(h = 5, r = 10, $fn = 48);
  if (shape == 4) cylinder(h = 9, r1 = 6, r2 = 0, $fn = 9);
  if (shape == 5) cylinder(h = 9, r1 = 6, r2 = 2, $fn = 20);
  if (shape == 6) sphere(r = 8, $fn = 8);
  if (shape == 7) sphere(r = 10, $fn = 20);
  if (shape == 8) scale([3, 1, 0.5]) sphere(r = 5, $fn = 12);
  if (shape == 9) linear_extrude(6) polygon([[0, 0], [9, 0], [12, 5], [7, 8], [1, 6]]);
  if (shape == 10) polyhedron([[0, 0, 0], [9, 0, 0], [2, 8, 0], [3, 3, 7]],
                              [[0, 1, 2], [0, 3, 1], [1, 3, 2], [2, 3, 0]]);
  if (shape == 11) hull() { cube([10, 10, 1], center = true); translate([0, 0, 6]) cube([4, 4, 1], center = true); }
  if (shape == 12) minkowski() { cube([8, 5, 2]); cylinder(h = 1, r = 2, $fn = 8); }
  if (shape == 13) intersection() { cube(10, center = true); rotate([45, 35.2644, 0]) cube(11, center = true); }
}
translate(turns[turn][0]) rotate(turns[turn][1]) one();
