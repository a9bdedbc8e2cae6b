MODULE Dictionary;  (* the known words, in a table with chains; the list of words is a text *)

  IMPORT Files, Texts, Log, S := Sync;

  CONST
    Heads = 1024;
    server = "words";
    listName = "Words.Text";

  TYPE
    Word = POINTER TO WordDesc;
    WordDesc = RECORD letters: Files.Name; next: Word END;

  VAR
    size*: INTEGER;
    table: ARRAY Heads OF Word;
    list: Texts.Text;
    k: INTEGER;

  PROCEDURE Hash(letters: ARRAY OF CHAR): INTEGER;
    VAR i, h: INTEGER;
  BEGIN i := 0; h := 0;
    WHILE (i < LEN(letters)) & (letters[i] # 0X) DO h := (h * 31 + ORD(letters[i])) MOD Heads; INC(i) END
    RETURN h
  END Hash;

  PROCEDURE Knows*(letters: ARRAY OF CHAR): BOOLEAN;
    VAR w: Word;
  BEGIN w := table[Hash(letters)];
    WHILE (w # NIL) & (w.letters # letters) DO w := w.next END
    RETURN w # NIL
  END Knows;

  PROCEDURE Enter(letters: Files.Name);
    VAR w: Word; h: INTEGER;
  BEGIN
    IF ~Knows(letters) THEN
      h := Hash(letters); NEW(w); w.letters := letters; w.next := table[h]; table[h] := w; INC(size)
    END
  END Enter;

  PROCEDURE Learn*(letters: Files.Name);  (* here only; the server's list stays as it is *)
  BEGIN
    IF ~Knows(letters) THEN Enter(letters);
      Texts.Append(list, letters); Texts.Insert(list, list.length, " ")
    END
  END Learn;

  PROCEDURE ReadList(f: Files.File);
    VAR S: Texts.Scanner;  (* hides the module *)
  BEGIN Texts.Load(list, f); Texts.OpenScanner(S, list, 0); Texts.Scan(S);
    WHILE S.class # Texts.none DO
      IF S.class = Texts.word THEN Enter(S.s)
      ELSIF S.class = Texts.number THEN Log.String("a number among the words: "); Log.Int(S.i); Log.Line
      END;
      Texts.Scan(S)
    END
  END ReadList;

  (* Looks for a newer list of words. S.Fetch leaves f as it is where the server doesn't answer. *)
  PROCEDURE Open*;
    VAR f: Files.File;
  BEGIN f := Files.Old(listName); S.Fetch(server, listName, f);
    IF f # NIL THEN ReadList(f) ELSE Log.String("no list of words"); Log.Line END
  END Open;

  PROCEDURE Close*;
  BEGIN Texts.Store(list, listName)
  END Close;

BEGIN size := 0; list := Texts.New();
  FOR k := 0 TO Heads - 1 DO table[k] := NIL END
END Dictionary.
