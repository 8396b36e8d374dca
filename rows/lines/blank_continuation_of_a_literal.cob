           DISPLAY "AB
      -
