       AUTHOR.
      X B
