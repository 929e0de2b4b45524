select doc ->> 'rid', title from Review join Product on sku = doc ->> 'sku' where doc ->> 'stars' = 5;
