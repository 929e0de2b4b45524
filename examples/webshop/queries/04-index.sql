select oid, sku from Line join Product using (sku) where cat = 'g3';
