      * OPEN of a file that another SELECT has opened.
       IDENTIFICATION DIVISION.
       PROGRAM-ID. DIFFERENCE.
       ENVIRONMENT DIVISION.
       INPUT-OUTPUT SECTION.
       FILE-CONTROL.
           SELECT F ASSIGN TO "DIFFER"
               ORGANIZATION IS INDEXED
               ACCESS MODE IS DYNAMIC
               RECORD KEY IS K
               ALTERNATE RECORD KEY IS A WITH DUPLICATES
               FILE STATUS IS S.
           
           SELECT G ASSIGN TO "DIFFER"
               ORGANIZATION IS INDEXED
               ACCESS MODE IS DYNAMIC
               RECORD KEY IS GK
               ALTERNATE RECORD KEY IS GA WITH DUPLICATES
               FILE STATUS IS T.
       DATA DIVISION.
       FILE SECTION.
       FD  F.
       01  R.
           05  K PIC X(2).
           05  A PIC X(2).
           05  B PIC X(2).
       
       FD  G.
       01  GR.
           05  GK PIC X(2).
           05  GA PIC X(2).
           05  GB PIC X(2).
       WORKING-STORAGE SECTION.
       01  S PIC XX.
       01  T PIC XX.
       PROCEDURE DIVISION.
       MAIN-PARAGRAPH.
           OPEN OUTPUT F.
           CLOSE F.
           OPEN INPUT F.
           OPEN INPUT G.
           DISPLAY T.
           CLOSE F.
           CLOSE G.
           STOP RUN.
