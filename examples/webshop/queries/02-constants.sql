select oid, day from Purchase where cid = 'c2' and state = 'paid';
