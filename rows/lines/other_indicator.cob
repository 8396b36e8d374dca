       A
      X B
