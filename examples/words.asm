li a0, 5000     # two words: the number has more than twelve bits
li a0, 0xfff
li a0, -1
