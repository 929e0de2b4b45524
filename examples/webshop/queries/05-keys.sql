select sku, title, a.value, b.value from Product join Stock a on a.key = sku and a.field = 'onhand'
  join Stock b on b.key = sku and b.field = 'reserved' where cat = 'g1';
