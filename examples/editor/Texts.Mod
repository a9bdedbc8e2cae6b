MODULE Texts;  (* texts in a buffer with a gap at the last edit; readers and scanners *)

  IMPORT Files, Fonts;

  CONST
    Size = 65536;
    none* = 0; word* = 1; number* = 2; other* = 3;  (* classes of scanned symbols *)

  TYPE
    Text* = POINTER TO TextDesc;
    Notifier* = PROCEDURE (t: Text; beg: INTEGER);  (* the text was changed from beg on *)
    TextDesc* = RECORD
        length*: INTEGER;
        font*: Fonts.Font;
        notify*: Notifier;
        gap: INTEGER;  (* where the free part of buf begins *)
        buf: ARRAY Size OF CHAR
      END;

    Reader* = RECORD
        eot*: BOOLEAN;
        text: Text;
        pos*: INTEGER
      END;

    Scanner* = RECORD (Reader)
        class*: INTEGER;
        i*: INTEGER;  (* value of a number *)
        s*: Files.Name;  (* letters of a word *)
        beg*: INTEGER;  (* where the symbol begins *)
        ch: CHAR  (* the one behind it *)
      END;

  PROCEDURE Changed(t: Text; beg: INTEGER);
  BEGIN
    IF t.notify # NIL THEN t.notify(t, beg) END
  END Changed;

  PROCEDURE MoveGap(t: Text; pos: INTEGER);
    VAR free: INTEGER;
  BEGIN free := Size - t.length;
    WHILE t.gap > pos DO DEC(t.gap); t.buf[t.gap + free] := t.buf[t.gap] END;
    WHILE t.gap < pos DO t.buf[t.gap] := t.buf[t.gap + free]; INC(t.gap) END
  END MoveGap;

  PROCEDURE Insert*(t: Text; pos: INTEGER; ch: CHAR);
  BEGIN ASSERT((pos >= 0) & (pos <= t.length) & (t.length < Size));
    MoveGap(t, pos); t.buf[pos] := ch; INC(t.gap); INC(t.length); Changed(t, pos)
  END Insert;

  PROCEDURE Delete*(t: Text; beg, end: INTEGER);
  BEGIN ASSERT((beg >= 0) & (beg <= end) & (end <= t.length));
    MoveGap(t, end); t.gap := beg; DEC(t.length, end - beg); Changed(t, beg)
  END Delete;

  PROCEDURE Append*(t: Text; s: ARRAY OF CHAR);
    VAR i: INTEGER;
  BEGIN i := 0;
    WHILE (i < LEN(s)) & (s[i] # 0X) DO Insert(t, t.length, s[i]); INC(i) END
  END Append;

  PROCEDURE New*(): Text;
    VAR t: Text;
  BEGIN NEW(t); t.length := 0; t.gap := 0; t.notify := NIL; t.font := Fonts.Default
    RETURN t
  END New;

  PROCEDURE Load*(t: Text; f: Files.File);
    VAR r: Files.Rider; ch: CHAR;
  BEGIN t.length := 0; t.gap := 0; Files.Set(r, f, 0); Files.Read(r, ch);
    WHILE ~r.eof & (t.length < Size) DO t.buf[t.length] := ch; INC(t.length); Files.Read(r, ch) END;
    t.gap := t.length; Changed(t, 0)
  END Load;

  PROCEDURE OpenReader*(VAR r: Reader; t: Text; pos: INTEGER);
  BEGIN r.text := t; r.pos := pos; r.eot := FALSE
  END OpenReader;

  PROCEDURE Read*(VAR r: Reader; VAR ch: CHAR);
  BEGIN
    IF r.pos >= r.text.length THEN ch := 0X; r.eot := TRUE
    ELSIF r.pos < r.text.gap THEN ch := r.text.buf[r.pos]
    ELSE ch := r.text.buf[r.pos + Size - r.text.length]
    END;
    INC(r.pos)
  END Read;

  PROCEDURE OpenScanner*(VAR s: Scanner; t: Text; pos: INTEGER);
  BEGIN OpenReader(s, t, pos); Read(s, s.ch)
  END OpenScanner;

  PROCEDURE IsLetter(ch: CHAR): BOOLEAN;
    RETURN (ch >= "A") & (ch <= "Z") OR (ch >= "a") & (ch <= "z")
  END IsLetter;

  PROCEDURE Scan*(VAR s: Scanner);
    VAR k: INTEGER;
  BEGIN
    WHILE ~s.eot & (s.ch <= " ") DO Read(s, s.ch) END;
    s.beg := s.pos - 1; k := 0;
    IF s.eot THEN s.class := none
    ELSIF IsLetter(s.ch) THEN s.class := word;
      REPEAT
        IF k < Files.NameLength - 1 THEN s.s[k] := s.ch; INC(k) END;
        Read(s, s.ch)
      UNTIL ~IsLetter(s.ch)
    ELSIF (s.ch >= "0") & (s.ch <= "9") THEN s.class := number; s.i := 0;
      REPEAT s.i := s.i * 10 + ORD(s.ch) - ORD("0"); Read(s, s.ch) UNTIL (s.ch < "0") OR (s.ch > "9")
    ELSE s.class := other; Read(s, s.ch)
    END;
    s.s[k] := 0X
  END Scan;

  PROCEDURE Store*(t: Text; name: ARRAY OF CHAR);
    VAR f: Files.File; w: Files.Rider; r: Reader; ch: CHAR;
  BEGIN f := Files.New(name); Files.Set(w, f, 0); OpenReader(r, t, 0); Read(r, ch);
    WHILE ~r.eot DO Files.Write(w, ch); Read(r, ch) END;
    Files.Flush(w); Files.Register(f)
  END Store;

END Texts.
