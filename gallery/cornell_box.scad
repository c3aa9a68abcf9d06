// The Cornell box, by the measures that Cornell's program of computer graphics has published.
module block(base, height) linear_extrude(height = height) polygon(base);

mirror([1, 0, 0]) {
  color([0.84, 0.82, 0.78]) {
    translate([0, 0, -10]) cube([556, 560, 10]);
    translate([0, 0, 548.8]) cube([556, 560, 10]);
  }
  color([0.66, 0.64, 0.60]) translate([0, 559.2, 0]) cube([556, 10, 548.8]);
  color([0.95, 0.22, 0.18]) translate([552.8, 0, 0]) cube([10, 559.2, 548.8]);
  color([0.20, 0.62, 0.26]) translate([-10, 0, 0]) cube([10, 559.2, 548.8]);
  color([0.93, 0.91, 0.87]) {
    block([[130, 65], [82, 225], [240, 272], [290, 114]], 165);
    block([[423, 247], [265, 296], [314, 456], [472, 406]], 330);
  }
  color([1, 1, 0.8]) translate([213, 227, 548]) cube([130, 105, 0.79]);
}
