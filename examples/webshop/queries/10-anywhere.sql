select cid from Purchase union select doc -> 'by' ->> 'cid' from Review
  union select value ->> 'cid' from Review, json_each(doc, '$.comments');
