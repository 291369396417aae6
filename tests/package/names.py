"""What a feed calls its stops and routes."""
import os

import dezhampul
from made import Case, answer, example, make_feed, stops_of

ODD = " \u00a0a, \"b\"\n<i>\u2028"


def put_bytes(path, data):
    with open(path, "wb") as file:
        file.write(data)


class Names(Case):
    def test_by_hand(self):
        """stops, routes and the route of each trip, in the order of the files"""
        names = dezhampul.names(example("harbour"))
        self.assertEqual(list(names.stops), stops_of("harbour"))
        self.assertEqual(names.stops["HAR-1"], dezhampul.Stop("HAR-1", "Old Harbour", "1", "0"))
        self.assertEqual(names.stops["HAR"].location_type, "1")
        self.assertEqual(names.routes, {
            "RING": dezhampul.Route("RING", "1", "Harbour Ring", "0055A4", "FFFFFF"),
            "NIGHT": dezhampul.Route("NIGHT", "", "Night Line", "", ""),
        })
        self.assertEqual((len(names.route_of), names.route_of["ring-early"], names.route_of["boat"]), (7, "RING", "NIGHT"))
        hash(names)

    def test_odd_files(self):
        """files may have marks, quotes, blanks, NULs, short and blank rows, and columns in any order; ids are those of the program"""
        quoted = ODD.replace('"', '""')
        folder = make_feed(
            self.path("odd"), routes="route_type,route_short_name,route_id\n3,10,R1",
            stops='\ufeff\r\n"stop_lat", stop_id ,stop_lon,stop_name,platform_code\r\n\r\n'
            f'1," S1 ",2," {quoted} ",\r\n , ,\r\n1,\0S2\x7f ,2,Big\0Lake\r\n')
        self.assertEqual(dezhampul.check(folder).errors, 0)
        names = dezhampul.names(folder)
        self.assertEqual(names.stops, {"S1": dezhampul.Stop("S1", ODD.strip(" "), "", ""), "S2": dezhampul.Stop("S2", "Big Lake", "", "")})
        self.assertEqual(names.routes, {"R1": dezhampul.Route("R1", "10", "", "", "")})
        text = answer("timetable", folder, "--route=R1", "--date=20240401")
        self.assertEqual([line.split("\t")[0] for line in text.splitlines()[2:]], list(names.stops))

    def test_faults(self):
        """files that are not there, are none, or are no text"""
        no_text = b"trip_id,route_id\n\xff,R1\n"
        for spoil in (os.remove, lambda path: (os.remove(path), os.mkfifo(path)), lambda path: put_bytes(path, no_text)):
            folder = make_feed(self.path(f"f{len(os.listdir(self.room))}"))
            spoil(os.path.join(folder, "trips.txt"))
            with self.refused(dezhampul.DeviceFault, 3, f"stops.txt, routes.txt or trips.txt of {folder} cannot be read"):
                dezhampul.names(folder)
        path, text = os.path.join(example("f1"), "stops.txt"), "stops.txt, routes.txt or trips.txt of {} cannot be read"
        with self.refused(dezhampul.DeviceFault, 3, f"{path} is a file, not a folder: unzip it first", text.format(path)):
            dezhampul.names(path)
