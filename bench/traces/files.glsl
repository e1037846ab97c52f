uint halved(uint x) {
  return x / 2u;
}

uint mixed(uint x) {
  uint y = halved(x) ^ 21u;
  return y * halved(y);
}
