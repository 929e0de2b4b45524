select sku from Parcel join Line using (oid) where carrier = 'UPS' union select value from Session where field = 'cart'
  union select doc ->> 'sku' from Review where doc ->> 'stars' = 1;
