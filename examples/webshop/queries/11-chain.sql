select sup, name from Supplier join Offer using (sup) join Line using (sku) join Parcel using (oid)
  join Purchase using (oid) where carrier = 'DHL';
