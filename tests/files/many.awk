# Writes a data sheet with the mandatory objects and so many (-v count=N) objects from 2000h on of a type (-v type=N).
BEGIN {
    print "[MandatoryObjects]\nSupportedObjects=3\n1=0x1000\n2=0x1001\n3=0x1018"
    print "[1000]\nDataType=7\nAccessType=ro\n[1001]\nDataType=5\nAccessType=ro"
    print "[1018]\nObjectType=9\n[1018sub0]\nDataType=5\nAccessType=ro\n[1018sub1]\nDataType=7\nAccessType=ro"
    print "[ManufacturerObjects]\nSupportedObjects=" count
    for (i = 1; i <= count; i++) printf "%d=0x%X\n", i, 8191 + i
    for (i = 1; i <= count; i++) printf "[%X]\nDataType=%d\nAccessType=rw\n", 8191 + i, type
}
