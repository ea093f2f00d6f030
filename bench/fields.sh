# Two scripts whose field has 4095 lines of 4095 pixels, but for the last of 4094: in one region, and in seven. By the writers of examples/make.sh.
one_region() { long_field 0 0 $plain; }
seven_regions() { long_field 0 0 $plain 600 0 $plain 1200 0 $plain 1800 0 $plain 2400 0 $plain 3000 0 $plain 3600 0 $plain; }

# first line, sequence and mode of each region
long_field() {
  pattern 0 400 21 10 110 210 20 120 220 30 130 230 40 140 240 50 150 250 60 160 260
  sequence 0 0 4095 50 10 10 0
  field 4095 4094 2000 $none "$@"
}
