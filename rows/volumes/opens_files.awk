# Prints a program that makes the files with the numbers from FIRST to LAST, and shows the status of each OPEN.
BEGIN {
    print "       IDENTIFICATION DIVISION.\n       PROGRAM-ID. OPENS-FILES.\n       ENVIRONMENT DIVISION."
    print "       INPUT-OUTPUT SECTION.\n       FILE-CONTROL."
    for (i = FIRST; i <= LAST; i++) printf "           SELECT A%03d ASSIGN TO \"F%03d\" FILE STATUS IS S.\n", i, i
    print "       DATA DIVISION.\n       FILE SECTION."
    for (i = FIRST; i <= LAST; i++) printf "       FD  A%03d.\n       01  R%03d  PIC X.\n", i, i
    print "       WORKING-STORAGE SECTION.\n       01  S  PIC XX.\n       PROCEDURE DIVISION.\n       MAIN."
    for (i = FIRST; i <= LAST; i++) printf "           OPEN OUTPUT A%03d. DISPLAY S.\n", i
    print "           STOP RUN."
}
