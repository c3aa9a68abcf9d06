polyhedron(points=[for(i=[0:9]) let(r=i%2?4:10) [r*cos(36*i),r*sin(36*i),0], [0,0,6],[0,0,-3]],
 faces=[for(i=[0:9]) each [[i,10,(i+1)%10],[(i+1)%10,11,i]]]);
