// A temple before the sky: steps, columns round a cella with a door, beams and a roof.
$fn = 16;

module at(x, y, z, size) translate([x, y, z]) cube(size);

color([0.36, 0.56, 0.30]) at(-400, -400, -5, [800, 700, 5]);
color([0.62, 0.78, 0.93]) at(-600, 300, -300, [1200, 10, 900]);
color([0.80, 0.78, 0.72]) at(-24, -44, 0, [48, 88, 1]);
color([0.84, 0.82, 0.76]) at(-22, -42, 1, [44, 84, 1]);
color([0.88, 0.86, 0.80]) at(-20, -40, 2, [40, 80, 1]);
color([0.92, 0.89, 0.80]) for (x = [-17, -5.5, 5.5, 17], y = [-37, -22.2, -7.4, 7.4, 22.2, 37])
  if (abs(x) > 6 || abs(y) > 30) {
    translate([x, y, 3]) cylinder(h = 17, r1 = 1.9, r2 = 1.6);
    at(x - 2.2, y - 2.2, 20, [4.4, 4.4, 1]);
  }
color([0.86, 0.83, 0.74]) at(-20, -40, 21, [40, 80, 3]);
color([0.80, 0.38, 0.27]) translate([0, 42, 24]) rotate([90, 0, 0])
  linear_extrude(height = 84) polygon([[-22, 0], [22, 0], [0, 10]]);
difference() {
  color([0.78, 0.72, 0.62]) at(-10, -26, 3, [20, 52, 18]);
  color([0.30, 0.20, 0.14]) at(-3, -27, 3, [6, 8, 12]);
}
