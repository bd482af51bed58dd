# One thread sends to 63 others. Assemble with: riscv64-unknown-elf-as -march=rv32im_zicsr -mabi=ilp32 (control registers by number).
 csrrs a0,0xf14,x0
 li s0,5000
 li s2,0x50000000
 li s4,2
 bnez a0,take
 li t0,-2
 csrrw x0,0x804,t0
 li t0,-1
 csrrw x0,0x805,t0
 csrrw x0,0x803,x0
 li s1,1
 li a1,1
send: csrrw x0,0x809,s1
 sw a1,0(s2)
 csrrw x0,0x806,s1
 addi a1,a1,1
 addi s0,s0,-1
 bnez s0,send
 csrrw x0,0x80b,x0
take: li a0,0
next: csrrw x0,0x809,s4
 csrrs t0,0x807,x0
 lw a1,0(t0)
 csrrw x0,0x808,t0
 add a0,a0,a1
 addi s0,s0,-1
 bnez s0,next
 csrrw x0,0x80b,a0
