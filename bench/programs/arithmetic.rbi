main {
  var i = 0;
  var sum = 0;
  while (i < 1000000) {
    sum = (sum * 31 + i) % 1000003;
    i = i + 1;
  }
  print(sum);
}
