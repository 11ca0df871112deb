; Page 9: subroutines. It has no table.
X10:    READ :X         ; multiplies X by 10
        ?C#0 M
        ?NC RTN         ; zero stays zero
        SETDEC          ; exponents count in base 10
        C=C+1 S&X
        SETHEX
        WRIT :X
        RTN

; A = the sum of the ten digits of C's mantissa, in base 10, in places 1 and 0. Uses C and P.
SUM10:  A=0 ALL
        C=0 S&X
        C=0 MS
        RCR 3           ; the last digit of the mantissa is at place 0
        R= 0
        SETDEC
NEXT:   A=A+C @R        ; adds the digit at place 0
        JNC :SHIFT
        R=R+1
        A=A+1 @R        ; the carry
        R=R-1
SHIFT:  RSHFC ALL
        ?C#0 ALL
        JC :NEXT
        SETHEX
        RTN

; C = the number in places 1 and 0 of A, as a register of the stack has it. Uses A and P.
NUMBER: C=0 ALL
        A<>C ALL
        RCR 3           ; its first digit is at place 12
        R= 12
        ?C#0 @R
        JC :DONE
        RCR 13          ; below 10: one place left
        RTN
DONE:   C=C+1 S&X
        RTN
