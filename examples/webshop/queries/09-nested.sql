select doc ->> 'sku', v.value ->> 'code', h.value ->> 'n' from Article, json_each(doc, '$.variants') v, json_each(v.value, '$.stock') h
  where v.value ->> 'colour' = 'blue' and h.value ->> 'house' = 'w1';
