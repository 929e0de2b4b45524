select doc ->> 'rid', item.value ->> 'cid' from Review, json_each(doc, '$.comments') item
  join Purchase p on p.cid = item.value ->> 'cid' join Line l on l.oid = p.oid and l.sku = doc ->> 'sku';
