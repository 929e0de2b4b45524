select tag.value, city from Review, json_each(doc, '$.tags') tag join Address on cid = doc -> 'by' ->> 'cid';
