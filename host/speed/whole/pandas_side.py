"""Check and energy by document 000's parsing routines, straight on.

    pandas_side.py FOLDER H RUNS

prints the best time of each stage in milliseconds, the figures, and the peak of the process's memory in bytes.
"""

import json
import resource
import sys
import time

import numpy
import pandas


def parse_dc(s):
    m = map(lambda x: [int(i) for i in x.split('_')], s.split(' '))
    return list(m)


def read_timetable(name):
    ids = ('leg_id', 'train_id', 'track_id', 'start_station_id', 'end_station_id')
    converters = {
        'nominal_departure_configuration': lambda x: parse_dc(x)[0],
        'departure_configurations': parse_dc}
    return pandas.read_csv(name, dtype={name: 'Int64' for name in ids}, converters=converters)


def read_profiles(name):
    converters = {'power_consumptions': lambda x: [float(f) for f in x.split(' ')]}
    return pandas.read_csv(name, dtype={'profile_id': 'Int64'}, converters=converters)


def read_constraints(name):
    # Document 000 also gives an encoding here, which Python has since dropped.
    with open(name, 'r') as infile:
        return json.load(infile, parse_int=int)


def inequalities(constraints, chosen):
    """Left and right side of each inequality, in document 01's order."""
    def legs(record):
        return chosen[record['first_leg_id']], chosen[record['second_leg_id']]
    for record in constraints['headway_time_constraints']:
        (d1, t1, _), (d2, t2, _) = legs(record)
        yield d1 + record['min_headway_time'], d2
        yield d1 + t1 + record['min_headway_time'], d2 + t2
    for record in constraints['single_track_headway_constraints']:
        (d1, t1, _), (d2, _, _) = legs(record)
        yield d1 + t1, d2
    for name, least in (('dwell_time', 'min_dwell_time'), ('terminal_turnaround', 'min_turnaround_time')):
        for record in constraints[name + '_constraints']:
            (d1, t1, _), (d2, _, _) = legs(record)
            yield d1 + t1 + record[least], d2
    for record in constraints['connection_constraints']:
        (d1, t1, _), (d2, _, _) = legs(record)
        x = d1 + t1 if record['connection_type'] == 'arrival_to_departure' else d1
        yield x + record['min_connection_time'], d2
        yield d2, x + record['max_connection_time']


def accepted(timetable, constraints, solution):
    rows = zip(timetable['departure_configurations'], solution['nominal_departure_configuration'])
    if not all(choice in offers for offers, choice in rows):
        return False
    chosen = dict(zip(solution['leg_id'].tolist(), solution['nominal_departure_configuration']))
    return all(left <= right for left, right in inequalities(constraints, chosen))


def energies(h, profiles, constraints, solution):
    """Before recuperation, drawn and lost, in kJ."""
    powers = {}
    for name, samples in zip(profiles['profile_id'].tolist(), profiles['power_consumptions']):
        powers[name] = numpy.rint(numpy.array(samples) * 1000).astype(numpy.int64)
    subnets = constraints['recuperation_subnets']
    place = {track: s for s, subnet in enumerate(subnets) for track in subnet['track_ids']}
    curves = numpy.zeros((len(subnets), h), dtype=numpy.int64)
    before = 0
    for track, (d, t, p) in zip(solution['track_id'].tolist(), solution['nominal_departure_configuration']):
        curves[place[track], d:d + t] += powers[p]
        before += int(powers[p].clip(min=0).sum())
    return before, int(curves.clip(min=0).sum()), int((-curves).clip(min=0).sum())


def main(folder, h, runs):
    best = {}

    def timed(stage, work, *words):
        start = time.thread_time()
        result = work(*words)
        best[stage] = min(best.get(stage, float('inf')), 1000 * (time.thread_time() - start))
        return result

    for _ in range(runs):
        timetable = timed('timetable', read_timetable, folder + '/timetable.csv')
        profiles = timed('profiles', read_profiles, folder + '/profiles.csv')
        constraints = timed('constraints', read_constraints, folder + '/constraints.json')
        solution = timed('solution', read_timetable, folder + '/solution.csv')
        if not timed('verdict', accepted, timetable, constraints, solution):
            sys.exit('not accepted')
        figures = timed('curves', energies, h, profiles, constraints, solution)

    readers = ('timetable', 'profiles', 'constraints', 'solution')
    for stage in readers:
        print(stage, best[stage])
    check = sum(best[stage] for stage in readers) + best['verdict']
    print('check', check)
    print('energy', check + best['curves'])
    for name, figure in zip(('before', 'drawn', 'lost'), figures):
        print(name, figure)
    print('peak', 1024 * resource.getrusage(resource.RUSAGE_SELF).ru_maxrss)


main(sys.argv[1], int(sys.argv[2]), int(sys.argv[3]))
