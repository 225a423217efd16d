; The ROM of a starter box for an organ blower, on an 8049.
;
; On the left are the address and the code bytes, in hex. This is the only place where the bytes
; stand: demo/run makes the ROM of them, and its check holds the mnemonics against the proved
; listing of that ROM.
;
; T0      high while a Start message comes in
; T1      high while the motor's thermal contact is closed, low while it is open
; INT     low while Stop is pressed (looked at by JNI only: the interrupt stays off)
; P1.0    relay of the blower: 0 pulls it in. After reset it is 1.
; F1      1 while a message is held
; R6      timer overflows that are left of this minute
; R7      minutes for which the message has been held
;
; The timer counts every 32nd machine cycle, so it overflows every 256 x 32 = 8,192 cycles. With
; the demo's crystal of 4,096 Hz a cycle is 15/4,096 s: two overflows are one minute, exactly.

000  04 14          JMP OFF         ; power-up and reset

003  93             RETR            ; external interrupt: never enabled

; The timer interrupt. With the call it takes 6, 14 or 16 cycles, always an even number, so that
; the jumps that wait below stay in step with the timer.
007  EE 13  TIMER:  DJNZ R6,BACK    ; the minute is not over
009  BE 02          MOV R6,#02H     ; it is: the next has two overflows again
00B  1F             INC R7          ; one minute more
00C  FF             MOV A,R7
00D  D3 0A          XRL A,#0AH      ; is it the tenth?
00F  96 13          JNZ BACK
011  A5             CLR F1          ; yes: drop the message
012  65             STOP TCNT       ; and count no more
013  93     BACK:   RETR

014  89 01  OFF:    ORL P1,#01H     ; relay off
016  26 16  WAIT:   JNT0 WAIT       ; until a Start message comes

; A message is there. Its ten minutes begin at STRT T.
018  27             CLR A
019  62             MOV T,A         ; the timer from 0
01A  AF             MOV R7,A        ; no minute yet
01B  BE 02          MOV R6,#02H     ; two overflows a minute
01D  A5             CLR F1
01E  B5             CPL F1          ; the message is held
01F  55             STRT T          ; this cycle is not counted
020  25             EN TCNTI        ; this is cycle 1

; Every jump of this loop takes two cycles: the first 2 and 3, the next 4 and 5, and so on. The
; overflow is in cycle 8,192, an even one: it falls into the first cycle of a jump, every time.
021  56 27  HELD:   JT1 OBEY        ; the contact is closed: start
023  76 21          JF1 HELD        ; open, and not yet ten minutes: go on waiting
025  04 16          JMP WAIT        ; the message was dropped

027  65     OBEY:   STOP TCNT
028  A5             CLR F1          ; the message is used up
029  99 FE          ANL P1,#0FEH    ; relay on
02B  86 14  ON:     JNI OFF         ; Stop is pressed
02D  56 2B          JT1 ON          ; run while the contact is closed
02F  04 14          JMP OFF
