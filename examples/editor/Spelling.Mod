MODULE Spelling;  (* looks for words that the dictionary doesn't know *)

  IMPORT T := Texts, Files, Dictionary, Log;

  VAR open: BOOLEAN;

  PROCEDURE ToLower(VAR s: Files.Name);
    VAR i: INTEGER;
  BEGIN i := 0;
    WHILE s[i] # 0X DO
      IF (s[i] >= "A") & (s[i] <= "Z") THEN s[i] := CHR(ORD(s[i]) + 20H) END;
      INC(i)
    END
  END ToLower;

  (* The next unknown word from pos on; beg is -1 if there is none. *)
  PROCEDURE Next*(text: T.Text; pos: INTEGER; VAR beg: INTEGER; VAR letters: Files.Name);
    VAR s: T.Scanner; found: BOOLEAN;
  BEGIN
    IF ~open THEN Dictionary.Open; open := TRUE END;
    T.OpenScanner(s, text, pos); found := FALSE;
    REPEAT T.Scan(s);
      IF s.class = T.word THEN letters := s.s; ToLower(letters); found := ~Dictionary.Knows(letters) END
    UNTIL found OR (s.class = T.none);
    IF found THEN beg := s.beg ELSE beg := -1 END
  END Next;

  PROCEDURE Accept*(letters: Files.Name);
  BEGIN Dictionary.Learn(letters);
    Log.String("learnt: "); Log.String(letters); Log.String(", words: "); Log.Int(Dictionary.size); Log.Line
  END Accept;

  PROCEDURE Close*;
  BEGIN
    IF open THEN Dictionary.Close END
  END Close;

BEGIN open := FALSE
END Spelling.
