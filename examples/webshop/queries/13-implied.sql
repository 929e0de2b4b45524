select pid, oid from Payment join Line using (oid) join Purchase using (oid) join Customer using (cid) join Address using (aid);
