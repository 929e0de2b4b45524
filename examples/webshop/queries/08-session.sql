select a.value, b.value, email from Session a join Session b on b.key = a.key and b.field = 'cart'
  join Customer on cid = a.value where a.field = 'cid';
