       A
      -
