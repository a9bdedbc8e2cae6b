MODULE Mail;  (* sends texts to other users *)

  IMPORT Net, Texts;

  CONST
    server = "post";
    post = "POST";
    end = 4;  (* the byte behind a text *)

  VAR posted*: INTEGER;

  PROCEDURE Post*(user: ARRAY OF CHAR; t: Texts.Text);
    VAR c: Net.Connection; r: Texts.Reader; ch: CHAR;
  BEGIN c := Net.Open(server); Net.SendString(c, post); Net.SendString(c, user);
    Net.SendInt(c, t.length); Texts.OpenReader(r, t, 0); Texts.Read(r, ch);
    WHILE c.open & ~r.eot DO Net.Send(c, ORD(ch)); Texts.Read(r, ch) END;
    Net.Send(c, end);
    IF c.open THEN INC(posted) END;
    Net.Close(c)
  END Post;

BEGIN posted := 0
END Mail.
