/* Speech coding: 8,000 samples go to 4 bits each and back (IMA ADPCM). */
#include <stdio.h>

int step[89];
int turn[16];
int code[8000];
int seed = 77;

int next(void) {
  seed = seed * 1103515245 + 12345;
  return (seed >> 16) & 0x7fff;
}

void tables(void) {
  int i;
  for (i = 0; i < 16; i++)
    turn[i] = (i & 7) < 4 ? -1 : 2 * ((i & 7) - 3);
  step[0] = 7;
  step[1] = 8;
  step[2] = 9;
  step[3] = 10;
  step[4] = 11;
  step[5] = 12;
  step[6] = 13;
  step[7] = 14;
  step[8] = 16;
  step[9] = 17;
  step[10] = 19;
  step[11] = 21;
  step[12] = 23;
  step[13] = 25;
  step[14] = 28;
  step[15] = 31;
  step[16] = 34;
  step[17] = 37;
  step[18] = 41;
  step[19] = 45;
  step[20] = 50;
  step[21] = 55;
  step[22] = 60;
  step[23] = 66;
  step[24] = 73;
  step[25] = 80;
  step[26] = 88;
  step[27] = 97;
  step[28] = 107;
  step[29] = 118;
  step[30] = 130;
  step[31] = 143;
  step[32] = 157;
  step[33] = 173;
  step[34] = 190;
  step[35] = 209;
  step[36] = 230;
  step[37] = 253;
  step[38] = 279;
  step[39] = 307;
  step[40] = 337;
  step[41] = 371;
  step[42] = 408;
  step[43] = 449;
  step[44] = 494;
  step[45] = 544;
  step[46] = 598;
  step[47] = 658;
  step[48] = 724;
  step[49] = 796;
  step[50] = 876;
  step[51] = 963;
  step[52] = 1060;
  step[53] = 1166;
  step[54] = 1282;
  step[55] = 1411;
  step[56] = 1552;
  step[57] = 1707;
  step[58] = 1878;
  step[59] = 2066;
  step[60] = 2272;
  step[61] = 2499;
  step[62] = 2749;
  step[63] = 3024;
  step[64] = 3327;
  step[65] = 3660;
  step[66] = 4026;
  step[67] = 4428;
  step[68] = 4871;
  step[69] = 5358;
  step[70] = 5894;
  step[71] = 6484;
  step[72] = 7132;
  step[73] = 7845;
  step[74] = 8630;
  step[75] = 9493;
  step[76] = 10442;
  step[77] = 11487;
  step[78] = 12635;
  step[79] = 13899;
  step[80] = 15289;
  step[81] = 16818;
  step[82] = 18500;
  step[83] = 20350;
  step[84] = 22385;
  step[85] = 24623;
  step[86] = 27086;
  step[87] = 29794;
  step[88] = 32767;
}

int main(void) {
  int n;
  int wave = 0;
  int slope = 300;
  int guess = 0;
  int place = 0;
  int sum = 0;
  int error = 0;
  tables();
  for (n = 0; n < 8000; n++) {
    if (wave > 12000)
      slope = -(100 + (next() & 511));
    if (wave < -12000)
      slope = 100 + (next() & 511);
    wave += slope + (next() & 255) - 128;
    int s = step[place];
    int d = wave - guess;
    int c = 0;
    if (d < 0) {
      c = 8;
      d = -d;
    }
    int g = s >> 3;
    if (d >= s) {
      c = c | 4;
      d -= s;
      g += s;
    }
    s = s >> 1;
    if (d >= s) {
      c = c | 2;
      d -= s;
      g += s;
    }
    s = s >> 1;
    if (d >= s) {
      c = c | 1;
      g += s;
    }
    if (c & 8)
      guess -= g;
    else
      guess += g;
    if (guess > 32767)
      guess = 32767;
    else if (guess < -32768)
      guess = -32768;
    place += turn[c];
    if (place < 0)
      place = 0;
    else if (place > 88)
      place = 88;
    code[n] = c;
    int e = wave - guess;
    error += e < 0 ? -e : e;
    sum = sum * 3 + c;
  }
  printf("%d %d %d\n", guess, error, sum);
  guess = 0;
  place = 0;
  sum = 0;
  for (n = 0; n < 8000; n++) {
    int s = step[place];
    int c = code[n];
    int g = s >> 3;
    if (c & 4)
      g += s;
    if (c & 2)
      g += s >> 1;
    if (c & 1)
      g += s >> 2;
    if (c & 8)
      guess -= g;
    else
      guess += g;
    if (guess > 32767)
      guess = 32767;
    else if (guess < -32768)
      guess = -32768;
    place += turn[c];
    if (place < 0)
      place = 0;
    else if (place > 88)
      place = 88;
    sum = sum * 5 + guess;
  }
  printf("%d %d\n", guess, sum);
  return 0;
}
