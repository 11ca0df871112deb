; Page 9: subroutines. It has no table. Those that read or write the stack or ALPHA expect a selected address below 010.

; C = the number in C as 32 bits, in places 7 to 0. Uses A, B, N and P. Calls one level deeper.
WORD:   ?NC XQ :INTEGER
        ?NC XQ :BINARY
        RCR 8
        R= 5
        ?C#0 R<         ; a bit above the 32nd
        JC :WRONG
        RCR 6
        RTN

; C = the number in C as a whole number, its last digit in place 0. Others than 0 to 9999999999 are errors. Uses A and P.
INTEGER: ?C#0 MS        ; below zero, or a text
        JC :WRONG
        ?C#0 XS         ; below one
        JC :WRONG
        R= 1
        ?C#0 @R         ; an exponent above 9
        JC :WRONG
        A=C S&X
        C=0 S&X
        RCR 3           ; the mantissa, from place 9 to place 0
        R= 0
        SETDEC
DROP:   A=A+1 @R        ; counts the exponent up to 10
        JC :WHOLE
        ?C#0 @R         ; a digit after the point
        JC :WRONG
        RSHFC ALL
        JNC :DROP
WHOLE:  SETHEX
        RTN

WRONG:  SETHEX
        ?NC GO :ERRDE

; Ends with an error if C is a text. Uses A.
NUMERIC: ?C#0 MS
        ?NC RTN
        A=C MS
        SETDEC
        A=A+1 MS        ; 9, the sign of numbers below zero, gives a carry
        JC :SIGNED
        SETHEX
        ?NC GO :ERRAD
SIGNED: SETHEX
        RTN

; C = the decimal digits of C, in places 9 to 0, as a number in binary. Uses A, B, N and P.
BINARY: RCR 8           ; the first digit is at place 1
        N=C
        B=0 ALL         ; the number so far, times 100 (base 16)
        R= 9            ; counts ten digits
TENTH:  C=N
        RCR 13          ; the next digit is at place 2
        N=C
        A=0 ALL
        A=C XS
        C=B ALL
        C=C+C ALL
        A=A+C ALL       ; twice the number, and the digit
        C=C+C ALL
        C=C+C ALL
        C=A+C ALL       ; ten times the number, and the digit
        B<>C ALL
        R=R-1
        ?R= 13
        JNC :TENTH
        B<>C ALL
        RCR 2
        RTN

; C = the 32 bits in places 7 to 0 of C, as decimal digits. Uses A, B and N.
DECIMAL: RCR 8          ; the first bit is the highest of place 13
        N=C
        B=0 ALL         ; the digits so far
        LDI 031         ; counts 32 bits, in base 10
        A=C S&X
NEXT:   SETHEX
        C=N
        C=C+C ALL       ; the carry is the next bit
        JC :ONE
        N=C
        B<>C ALL
        SETDEC
        C=C+C ALL
        JNC :COUNT
ONE:    N=C
        B<>C ALL
        SETDEC
        C=C+C ALL
        C=C+1 ALL
COUNT:  B<>C ALL
        A=A-1 S&X
        JNC :NEXT
        SETHEX
        B<>C ALL
        RTN

; C = the decimal digits in places 9 to 0 of C, as a register of the stack has it. Uses A and P.
NUMBER: RCR 11          ; the mantissa
        ?C#0 M
        ?NC RTN
        A=C ALL
        LDI 009
        R= 12
SHIFT:  ?A#0 @R
        JC :SHIFTED
        LSHFA M
        C=C-1 S&X
        JNC :SHIFT
SHIFTED: A<>C M
        RTN

; Lifts the stack, and stores C into X. Uses M.
PUSH:   M=C
        READ :Z
        WRIT :T
        READ :Y
        WRIT :Z
        READ :X
        WRIT :Y
        C=M
        WRIT :X
        RTN

; Clears ALPHA. Uses C and P.
CLEARA: READ 8
        R= 5
        C=0 R<          ; the left four bytes have other uses
        WRIT 8
        C=0 ALL
        WRIT 7
        WRIT 6
        WRIT 5
        RTN

; Appends the character in places 1 and 0 of C to ALPHA. Uses A, C and P.
APPEND: A=C ALL
        R= 1
        READ 5
        RCR 12          ; one byte to the left; its first byte is at places 1 and 0,
        A<>C R<         ; where the character replaces it
        WRIT 5
        READ 6
        RCR 12
        A<>C R<
        WRIT 6
        READ 7
        RCR 12
        A<>C R<
        WRIT 7
        READ 8
        A<>C ALL
        R= 5
        LSHFA R<
        LSHFA R<
        R= 1
        A=C R<
        A<>C ALL
        WRIT 8
        RTN

; Appends Q + 1 digits of N to ALPHA, from place 13 on: zeros before the others only if S8 is set, but always the last digit.
; Uses A, C, P, Q and S8.
PRINT:  SLCT Q
        ?R= 0
        JNC :DIGIT
        SETF 8
DIGIT:  SLCT P
        C=N
        RCR 13          ; the next digit is at place 0
        N=C
        A=0 ALL
        R= 0
        A=C @R
        ?A#0 @R
        JNC :ZERO
        SETF 8
ZERO:   ?FSET 8
        JNC :SKIP
        LDI 030         ; the character 0
        A=A+C S&X
        LDI 03A
        ?A<C S&X
        JC :NUMERAL
        LDI 007         ; from 9 to A
        A=A+C S&X
NUMERAL: A<>C ALL
        ?NC XQ :APPEND
SKIP:   SLCT Q
        R=R-1
        ?R= 13
        JC :PRINTED
        SLCT P
        JNC :PRINT
PRINTED: SLCT P
        RTN

; Removes the last character of M, and puts its value, a digit in base 16, into place 13 of N, which moves one place right.
; No character counts as 0. Uses A, C and P.
TAKE:   C=M
        A=C ALL
        RCR 2
        M=C
        C=0 ALL
        R= 1
        A<>C R<
        A=C ALL
        ?A#0 S&X
        JNC :TAKEN
        LDI 030         ; the character 0
        A=A-C S&X
        JC :NODIGIT
        LDI 00A
        ?A<C S&X
        JC :TAKEN
        LDI 011         ; the character A, 17 after 0
        ?A<C S&X
        JC :NODIGIT
        LDI 007
        A=A-C S&X
        LDI 010
        ?A<C S&X
        JNC :NODIGIT
TAKEN:  C=N
        R= 0
        A<>C @R
        RCR 1
        N=C
        RTN
NODIGIT: ?NC GO :ERRDE
