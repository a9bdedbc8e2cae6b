MODULE Sync;  (* brings files from other machines *)

  IMPORT Net, Files;

  CONST get = "GET";

  VAR fetched*: INTEGER;

  PROCEDURE Copy(c: Net.Connection; f: Files.File; length: INTEGER);
    VAR w: Files.Rider; x: BYTE; i: INTEGER;
  BEGIN Files.Set(w, f, 0); i := 0;
    WHILE c.open & (i < length) DO
      Net.Receive(c, x); INC(i);
      IF c.open THEN Files.WriteByte(w, x) END
    END;
    Files.Flush(w)
  END Copy;

  (* The file of this name at the machine. f stays as it is if the machine doesn't answer, or has none. *)
  PROCEDURE Fetch*(machine, name: ARRAY OF CHAR; VAR f: Files.File);
    VAR c: Net.Connection; new: Files.File; length: INTEGER;
  BEGIN c := Net.Open(machine); Net.SendString(c, get); Net.SendString(c, name);
    Net.ReceiveInt(c, length);
    IF c.open & (length >= 0) THEN
      new := Files.New(name); Copy(c, new, length);
      IF c.open THEN Files.Register(new); f := new; INC(fetched) END
    END;
    Net.Close(c)
  END Fetch;

BEGIN fetched := 0
END Sync.
