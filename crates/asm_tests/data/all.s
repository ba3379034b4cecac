# Each instruction, with edge immediates and far targets, and the pseudo-instructions; all.hex has the words that GNU as gives for it.
.org 0x200000
lui a1, 0x0
auipc sp, 0x0
lui s5, 0x1
auipc s4, 0x1
lui a5, 0x80000
auipc s6, 0x80000
lui s9, 0xfffff
auipc s0, 0xfffff
lui s3, 0x12345
auipc a0, 0x12345
jal t4, 0x100028
jal t3, 0x30002a
jal s7, 0x200034
jal t5, 0x200034
jal ra, 0x200034
jal a6, 0x20083c
jal s11, 0x1ff840
jalr s2, -2048(t0)
jalr tp, 2047(t6)
jalr t1, 0(s1)
jalr s8, 1(gp)
jalr s10, -1(a3)
jalr a2, 4(t2)
jalr t0, a0, 12
beq a4, a7, 0x1ff060
beq zero, a1, 0x201062
beq sp, s5, 0x200068
beq s4, a5, 0x200074
beq s6, s9, 0x20006e
bne s0, s3, 0x1ff074
bne a0, t4, 0x201076
bne t3, s7, 0x20007c
bne t5, ra, 0x200088
bne a6, s11, 0x200082
blt s2, t0, 0x1ff088
blt tp, t6, 0x20108a
blt t1, s1, 0x200090
blt s8, gp, 0x20009c
blt s10, a3, 0x200096
bge a2, t2, 0x1ff09c
bge a4, a7, 0x20109e
bge zero, a1, 0x2000a4
bge sp, s5, 0x2000b0
bge s4, a5, 0x2000aa
bltu s6, s9, 0x1ff0b0
bltu s0, s3, 0x2010b2
bltu a0, t4, 0x2000b8
bltu t3, s7, 0x2000c4
bltu t5, ra, 0x2000be
bgeu a6, s11, 0x1ff0c4
bgeu s2, t0, 0x2010c6
bgeu tp, t6, 0x2000cc
bgeu t1, s1, 0x2000d8
bgeu s8, gp, 0x2000d2
lw s10, -2048(a3)
sw a2, -2048(t2)
lw a4, 2047(a7)
sw zero, 2047(a1)
lw sp, 0(s5)
sw s4, 0(a5)
lw s6, 4(s9)
sw s0, 4(s3)
lw a0, -1(t4)
sw t3, -1(s7)
addi t5, ra, -2048
addi a6, s11, 2047
addi s2, t0, 0
addi tp, t6, -1
addi t1, s1, 1365
slti s8, gp, -2048
slti s10, a3, 2047
slti a2, t2, 0
slti a4, a7, -1
slti zero, a1, 1365
sltiu sp, s5, -2048
sltiu s4, a5, 2047
sltiu s6, s9, 0
sltiu s0, s3, -1
sltiu a0, t4, 1365
xori t3, s7, -2048
xori t5, ra, 2047
xori a6, s11, 0
xori s2, t0, -1
xori tp, t6, 1365
ori t1, s1, -2048
ori s8, gp, 2047
ori s10, a3, 0
ori a2, t2, -1
ori a4, a7, 1365
andi zero, a1, -2048
andi sp, s5, 2047
andi s4, a5, 0
andi s6, s9, -1
andi s0, s3, 1365
slli a0, t4, 0
slli t3, s7, 1
slli t5, ra, 31
slli a6, s11, 16
srli s2, t0, 0
srli tp, t6, 1
srli t1, s1, 31
srli s8, gp, 16
srai s10, a3, 0
srai a2, t2, 1
srai a4, a7, 31
srai zero, a1, 16
add sp, s5, s4
add t6, zero, t6
sub a5, s6, s9
sub t6, zero, t6
sll s0, s3, a0
sll t6, zero, t6
slt t4, t3, s7
slt t6, zero, t6
sltu t5, ra, a6
sltu t6, zero, t6
xor s11, s2, t0
xor t6, zero, t6
srl tp, t6, t1
srl t6, zero, t6
sra s1, s8, gp
sra t6, zero, t6
or s10, a3, a2
or t6, zero, t6
and t2, a4, a7
and t6, zero, t6
mul zero, a1, sp
mul t6, zero, t6
mulhu s5, s4, a5
mulhu t6, zero, t6
divu s6, s9, s0
divu t6, zero, t6
remu s3, a0, t4
remu t6, zero, t6
ecall
add x0, zero, x31
add x1, ra, x30
add x2, sp, x29
add x3, gp, x28
add x4, tp, x27
add x5, t0, x26
add x6, t1, x25
add x7, t2, x24
add x8, s0, x23
add x9, s1, x22
add x10, a0, x21
add x11, a1, x20
add x12, a2, x19
add x13, a3, x18
add x14, a4, x17
add x15, a5, x16
add x16, a6, x15
add x17, a7, x14
add x18, s2, x13
add x19, s3, x12
add x20, s4, x11
add x21, s5, x10
add x22, s6, x9
add x23, s7, x8
add x24, s8, x7
add x25, s9, x6
add x26, s10, x5
add x27, s11, x4
add x28, t3, x3
add x29, t4, x2
add x30, t5, x1
add x31, t6, x0
add fp, fp, s0
nop
ret
j 0x2002b8
jal 0x20029c
jr a0
jalr a1
mv t3, s7
not t5, ra
neg a6, s11
seqz s2, t0
snez tp, t6
sltz t1, s1
sgtz s8, gp
beqz s10, 0x200314
bnez a3, 0x200318
blez a2, 0x20031c
bgez t2, 0x200320
bltz a4, 0x200324
bgtz a7, 0x200328
bgt zero, a1, 0x2002ac
ble sp, s5, 0x2002b0
bgtu s4, a5, 0x2002b4
bleu s6, s9, 0x2002b8
li s0, 0
li s3, 1
li a0, -1
li t4, 2047
li t3, -2048
li s7, 2048
li t5, -2049
li ra, 0x12345678
li a6, 0x7fffffff
li s11, 0xfffff000
li s2, 0xfff
li t0, 0x1000
li tp, -2147483648
li t6, 4294967295
li t1, 0xfffff800
li s1, 0xfffff7ff
li s8, 0x800
li gp, 0x7ffff800
loop: first:
addi t0, t0, -1   # labels
bnez t0, loop # back
lui a0, %hi(loop)
addi a0, a0, %lo(loop)
lw a1, %lo(last)(a0)
sw a1, %lo(first)(a0)
lw a2, (a0)
j last
last: ecall
