# Two threads send a number to each other. Assemble with: riscv64-unknown-elf-as -march=rv32im_zicsr -mabi=ilp32 (control registers by number).
 csrrs a0,0xf14,x0
 li s0,100000
 li s1,2
 li s2,0x50000000
 xori s3,a0,1      # the other thread
 li a1,0
 csrrw x0,0x803,s3
 bnez a0,answer
ask: addi a1,a1,1
 sw a1,0(s2)
 csrrw x0,0x806,x0
 csrrw x0,0x809,s1
 csrrs t0,0x807,x0
 lw a1,0(t0)
 csrrw x0,0x808,t0
 addi s0,s0,-1
 bnez s0,ask
 csrrw x0,0x80b,a1
answer: csrrw x0,0x809,s1
 csrrs t0,0x807,x0
 lw a1,0(t0)
 csrrw x0,0x808,t0
 addi a1,a1,1
 sw a1,0(s2)
 csrrw x0,0x806,x0
 addi s0,s0,-1
 bnez s0,answer
 csrrw x0,0x80b,a1
