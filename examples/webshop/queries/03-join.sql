select oid, name, city from Purchase join Customer using (cid) join Address using (aid, cid);
