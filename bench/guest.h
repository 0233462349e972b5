/* The guests: loops in Z80 instructions only, so that libz80ex runs them too. They run the same with translation off, on
   and separated, in system and in user mode, since every page is mapped to its own frame. */
#ifndef GUEST_H
#define GUEST_H

#include "program.h"

/* A scheduler's turn over eight tasks: few openings.

   0100 21 00 20     turn:  LD   HL,2000H      ; the tasks, two bytes each: age, credit
   0103 06 08               LD   B,8
   0105 11 00 00            LD   DE,0          ; sum of the ages
   0108 C5           task:  PUSH BC
   0109 7E                  LD   A,(HL)
   010A C6 03               ADD  A,3
   010C 77                  LD   (HL),A
   010D 23                  INC  HL
   010E 4E                  LD   C,(HL)
   010F CD 3B 01            CALL pay
   0112 23                  INC  HL
   0113 83                  ADD  A,E
   0114 5F                  LD   E,A
   0115 7A                  LD   A,D
   0116 CE 00               ADC  A,0
   0118 57                  LD   D,A
   0119 C1                  POP  BC
   011A 10 EC               DJNZ task
   011C ED 53 00 21         LD   (2100H),DE
   0120 DD 21 00 21         LD   IX,2100H
   0124 DD 7E 01            LD   A,(IX+1)
   0127 AB                  XOR  E
   0128 FE 40               CP   40H
   012A 38 01               JR   C,save
   012C 34                  INC  (HL)
   012D 21 00 20     save:  LD   HL,2000H
   0130 11 00 28            LD   DE,2800H
   0133 01 10 00            LD   BC,16
   0136 ED B0               LDIR
   0138 C3 00 01            JP   turn
   013B F5           pay:   PUSH AF
   013C 79                  LD   A,C
   013D E6 0F               AND  0FH
   013F 28 02               JR   Z,paid
   0141 0D                  DEC  C
   0142 71                  LD   (HL),C
   0143 F1           paid:  POP  AF
   0144 C9                  RET  */
static const uint8_t scheduler[] = {
    0x21, 0x00, 0x20, 0x06, 0x08, 0x11, 0x00, 0x00, 0xC5, 0x7E, 0xC6, 0x03, 0x77, 0x23, 0x4E, 0xCD, 0x3B, 0x01, 0x23,
    0x83, 0x5F, 0x7A, 0xCE, 0x00, 0x57, 0xC1, 0x10, 0xEC, 0xED, 0x53, 0x00, 0x21, 0xDD, 0x21, 0x00, 0x21, 0xDD, 0x7E,
    0x01, 0xAB, 0xFE, 0x40, 0x38, 0x01, 0x34, 0x21, 0x00, 0x20, 0x11, 0x00, 0x28, 0x01, 0x10, 0x00, 0xED, 0xB0, 0xC3,
    0x00, 0x01, 0xF5, 0x79, 0xE6, 0x0F, 0x28, 0x02, 0x0D, 0x71, 0xF1, 0xC9,
};

/* A filter's turn over eight channels: most instructions behind an opening.

   0100 DD 21 00 20  turn:  LD   IX,2000H     ; the channels, eight bytes each: count, state, sample, mean, mark
   0104 FD 21 40 20         LD   IY,2040H     ; the total, the last difference, history
   0108 06 08               LD   B,8
   010A D9                  EXX
   010B 21 00 00            LD   HL,0         ; sum of the means
   010E D9                  EXX
   010F DD CB 06 BE  chan:  RES  7,(IX+6)
   0113 DD CB 01 46         BIT  0,(IX+1)     ; due in this turn?
   0117 28 29               JR   Z,rest
   0119 DD 5E 02            LD   E,(IX+2)
   011C DD 56 03            LD   D,(IX+3)
   011F DD 6E 04            LD   L,(IX+4)
   0122 DD 66 05            LD   H,(IX+5)
   0125 B7                  OR   A
   0126 ED 52               SBC  HL,DE        ; mean := sample + (mean - sample) / 2
   0128 CB 2C               SRA  H
   012A CB 1D               RR   L
   012C 19                  ADD  HL,DE
   012D DD 75 04            LD   (IX+4),L
   0130 DD 74 05            LD   (IX+5),H
   0133 08                  EX   AF,AF'
   0134 AD                  XOR  L            ; a check sum in the other A
   0135 CB 07               RLC  A
   0137 08                  EX   AF,AF'
   0138 E5                  PUSH HL
   0139 D9                  EXX
   013A D1                  POP  DE
   013B ED 5A               ADC  HL,DE
   013D D9                  EXX
   013E DD CB 06 FE         SET  7,(IX+6)
   0142 DD CB 01 0E  rest:  RRC  (IX+1)
   0146 DD 34 02            INC  (IX+2)
   0149 DD 34 00            INC  (IX+0)
   014C 11 08 00            LD   DE,8
   014F DD 19               ADD  IX,DE
   0151 10 BC               DJNZ chan
   0153 D9                  EXX
   0154 FD 75 00            LD   (IY+0),L
   0157 FD 74 01            LD   (IY+1),H
   015A ED 5B 42 20         LD   DE,(2042H)
   015E ED 53 44 20         LD   (2044H),DE
   0162 ED 52               SBC  HL,DE
   0164 22 42 20            LD   (2042H),HL
   0167 D9                  EXX
   0168 FD CB 06 16         RL   (IY+6)
   016C C3 00 01            JP   turn  */
static const uint8_t filter[] = {
    0xDD, 0x21, 0x00, 0x20, 0xFD, 0x21, 0x40, 0x20, 0x06, 0x08, 0xD9, 0x21, 0x00, 0x00, 0xD9, 0xDD, 0xCB, 0x06, 0xBE,
    0xDD, 0xCB, 0x01, 0x46, 0x28, 0x29, 0xDD, 0x5E, 0x02, 0xDD, 0x56, 0x03, 0xDD, 0x6E, 0x04, 0xDD, 0x66, 0x05, 0xB7,
    0xED, 0x52, 0xCB, 0x2C, 0xCB, 0x1D, 0x19, 0xDD, 0x75, 0x04, 0xDD, 0x74, 0x05, 0x08, 0xAD, 0xCB, 0x07, 0x08, 0xE5,
    0xD9, 0xD1, 0xED, 0x5A, 0xD9, 0xDD, 0xCB, 0x06, 0xFE, 0xDD, 0xCB, 0x01, 0x0E, 0xDD, 0x34, 0x02, 0xDD, 0x34, 0x00,
    0x11, 0x08, 0x00, 0xDD, 0x19, 0x10, 0xBC, 0xD9, 0xFD, 0x75, 0x00, 0xFD, 0x74, 0x01, 0xED, 0x5B, 0x42, 0x20, 0xED,
    0x53, 0x44, 0x20, 0xED, 0x52, 0x22, 0x42, 0x20, 0xD9, 0xFD, 0xCB, 0x06, 0x16, 0xC3, 0x00, 0x01,
};

static const struct guest guests[] = {
    { "scheduler", scheduler, sizeof scheduler, 0x3EFA },
    { "filter", filter, sizeof filter, -1 },
};
enum { GUESTS = sizeof guests / sizeof *guests };

#endif
