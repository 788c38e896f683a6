"""Verbs over the first sheet's route: A1 runs forwards over link 1, and then backwards over link 2; 8,000 mm, measures 0 to 9,000."""

from program import after_first


def test_other_marks():
    after_first(
        ("a1,recalibrate,B1,0:0 8000:8000", "a1,refused,NoRoute"),
        ("a2,recalibrate,A1,0:0 8001:8000", "a2,refused,BadMarks:1"),
        ("a3,recalibrate,A1,0:100 4000:100 8000:200", "a3,refused,BadMarks:1"),
        ("a4,recalibrate,A1,0:5 7999:8000", "a4,refused,BadMarks:1"),
        ("a5,recalibrate,A1,0:0", "a5,refused,Malformed:b"),
        ("a6,recalibrate,A1,0:0 8000:8000,x", "a6,refused,Malformed:c"),
        ("a7,recalibrate,A1,0:0 8000:8000", "a7,done,8"),
        ("a7,recalibrate,A1,0:0 8000:8000", "a7,again,8"),
        ("a7,recalibrate,A1,0:0 8000:9000", "a7,refused,KeyUsed:8"),
        ("a8,recalibrate,A1,0:7 1:8 8000:100000000000", "a8,done,9"),
    )


def test_another_name():
    after_first(
        ("a1,renumber,A1,A1", "a1,refused,RouteKnown"),
        ("a2,renumber,B1,A1", "a2,refused,NoRoute"),
        ("a3,renumber,A1,B1", "a3,done,8"),
        ("a4,renumber,A1,C1", "a4,refused,NoRoute"),
        ("a5,renumber,B1,-B", "a5,refused,Malformed:b"),
        ("b1,route,C1,3:0:1:+ 2:0:1:+,0:0 2:2", "b1,refused,Taken:1"),
        ("b2,route,B1,3:0:1:+,0:0 1:1", "b2,refused,RouteKnown"),
        ("b3,route,A1,3:0:1:+,0:0 1:1", "b3,done,9"),
        ("b4,renumber,B1,A1", "b4,refused,RouteKnown"),
        ("b5,renumber,B1,0-9", "b5,done,10"),
        ("b6,recalibrate,B1,0:0 8000:8000", "b6,refused,NoRoute"),
        ("b7,recalibrate,0-9,0:0 8000:8000", "b7,done,11"),
        ("b8,renumber,A1,Z9", "b8,done,12"),
        ("b9,route,A1,3:0:2:+,0:0 2:2", "b9,refused,Taken:0"),
    )


def test_referents():
    after_first(
        ("a1,ref,KM2,A1,abs,3", "a1,done,8"),
        ("a2,ref,KM2,A1,abs,3", "a2,refused,RefKnown"),
        ("a3,ref,KM5,B1,abs,3", "a3,refused,NoRoute"),
        ("a4,ref,KM5,A1,rel,KM4+1", "a4,refused,NoRef"),
        ("a5,ref,KM5,A1,rel,KM2+4998", "a5,done,9"),
        ("a6,ref,END,A1,int,1/1", "a6,done,10"),
        ("a7,ref,OFF,A1,abs,9001", "a7,refused,OffRoute"),
        ("a8,ref,OFF,A1,rel,KM2-3", "a8,refused,OffRoute"),
        ("a9,ref,OFF,A1,foot,3", "a9,refused,Malformed:c"),
        ("b1,unref,KM9", "b1,refused,NoRef"),
        ("b2,unref,KM5", "b2,done,11"),
        ("b3,unref,KM5", "b3,refused,NoRef"),
        ("b4,ref,KM5,A1,rel,KM5+0", "b4,refused,NoRef"),
        ("b5,ref,KM5,A1,abs,6000", "b5,done,12"),
        ("c1,renumber,A1,B1", "c1,done,13"),
        ("c2,ref,KM6,A1,abs,0", "c2,refused,NoRoute"),
        ("c3,ref,KM6,B1,rel,KM5-1", "c3,done,14"),
        ("c4,ref,KM5,B1,abs,0", "c4,refused,RefKnown"),
        ("c5,recalibrate,B1,0:0 8000:8000", "c5,done,15"),
        ("c6,ref,KM7,B1,abs,8001", "c6,refused,OffRoute"),
        ("c7,ref,KM7,B1,abs,8000", "c7,done,16"),
        ("d1,unref,KM-7", "d1,refused,Malformed:a"),
        ("d2,unref,KM7,B1", "d2,refused,Malformed:b"),
        ("d3,ref,KM8,B1,abs,x", "d3,refused,Malformed:d"),
        ("b2,unref,KM5", "b2,again,11"),
    )


def test_assets():
    after_first(
        ("r1,ref,KM5,A1,abs,6000", "r1,done,8"),
        ("e1,enter,10,SPEED,A1,B,abs,5,16,80,0", "e1,done,9"),
        ("e2,enter,10,SPEED,A1,B,abs,5,16,80,0", "e2,refused,AssetKnown"),
        ("e3,enter,11,SPEED,A1,L,abs,10,20,80,0", "e3,refused,Overlap:10"),
        ("e4,enter,11,SPEED,A1,L,abs,16,20,80,0", "e4,done,10"),
        ("e5,enter,12,SIGN,A1,R,rel,KM5+0,,80,150", "e5,done,11"),
        ("e6,enter,13,SIGN,A1,R,rel,KM5+0,KM5+1,80,150", "e6,refused,WrongKind"),
        ("e7,enter,13,RAIL,A1,R,rel,KM5+0,,x,150", "e7,refused,WrongKind"),
        ("e8,enter,13,RAIL,A1,R,int,1/3,1/3,x,150", "e8,refused,Empty"),
        ("e9,enter,13,NONE,A1,R,int,1/3,2/3,x,150", "e9,refused,NoClass"),
        ("f1,enter,13,RAIL,X1,R,int,1/3,2/3,x,150", "f1,refused,NoRoute"),
        ("f2,enter,13,RAIL,A1,R,rel,NO+3,KM5+1,x,150", "f2,refused,NoRef"),
        ("f3,enter,13,RAIL,A1,R,rel,KM5+3,KM5+100000,x,150", "f3,refused,OffRoute"),
        ("f4,enter,13,RAIL,A1,R,int,1/3,2/3,x,150", "f4,done,12"),
        ("f5,enter,14,RAIL,A1,B,int,0/1,1/1,x,0", "f5,done,13"),
        ("f6,enter,15,RAIL,A1,L,int,1/2,1/3,x,0", "f6,refused,Empty"),
        ("f7,enter,15,SPEED,A1,B,int,0/1,1/1,x,0", "f7,refused,Overlap:10"),
        ("f8,renumber,A1,B1", "f8,done,14"),
        ("f9,enter,15,SPEED,B1,R,abs,19,21,x,0", "f9,done,15"),
        ("g1,enter,16,SPEED,B1,R,abs,20,21,x,0", "g1,refused,Overlap:15"),
    )


def test_a_route_is_split():
    """At an inner mark alone; what lies on the rear, and its referents, are then those of the new route."""
    after_first(
        ("a1,ref,KM2,A1,abs,3", "a1,done,8"),
        ("a2,ref,KM6,A1,abs,6003", "a2,done,9"),
        ("a3,enter,10,SPEED,A1,B,abs,5,8000,80,0", "a3,done,10"),
        ("b1,split,B1,5000,B2", "b1,refused,NoRoute"),
        ("b2,split,A1,5000,A1", "b2,refused,RouteKnown"),
        ("b3,split,A1,4999,B1", "b3,refused,NoMark"),
        ("b4,split,A1,0,B1", "b4,refused,NoMark"),
        ("b5,split,A1,8000,B1", "b5,refused,NoMark"),
        ("b6,split,A1,x,B1", "b6,refused,Malformed:b"),
        ("b7,split,A1,5000,B1", "b7,done,11"),
        ("c1,ref,KM7,A1,rel,KM6+0", "c1,refused,NoRef"),
        ("c2,ref,KM7,B1,rel,KM6+1", "c2,done,12"),
        ("c3,enter,11,SPEED,B1,L,abs,6001,6002,80,0", "c3,refused,Overlap:10"),
        ("c4,enter,11,SPEED,A1,R,abs,0,6,80,0", "c4,refused,Overlap:10"),
        ("c5,enter,11,SPEED,A1,R,abs,0,5,80,0", "c5,done,13"),
        ("c6,enter,12,SPEED,B1,R,abs,8000,9000,80,0", "c6,done,14"),
        ("c7,enter,13,SIGN,A1,R,abs,6001,,80,0", "c7,refused,OffRoute"),
        ("d1,recalibrate,B1,0:0 3000:3000", "d1,done,15"),
        ("d2,renumber,B1,Z", "d2,done,16"),
        ("d3,split,Z,1,Z2", "d3,refused,NoMark"),
        ("d4,route,C1,2:0:1:+,0:0 1:1", "d4,refused,Taken:0"),
    )
