// The answers in English of how it is decided and who sees what. docs/RULES.md and docs/PROMISES.md say the same, exactly.

import { longestList } from './config.js';
import { lecturers, projects, students } from './words-en.js';
import { texts } from './words.js';

export const words = texts({
  answers: {
    how: {
      title: 'How is it decided?',
      texts: [
        'Each student lists projects in order. Each lecturer puts everybody who listed one of the own projects into one ranking. The '
          + 'result follows from these lists and rankings, and from the places, and from nothing else: when somebody saved makes no '
          + 'difference.',
        'If a student would rather have another project of the own list, then all its places, or all its lecturer’s, went to students whom '
          + 'that lecturer ranks higher. Of all results of which this is true, it is the best for each single student.',
      ],
    },
    rank: {
      title: 'How should I rank?',
      texts: ['As you judge the students, best first, and not by what they seem to want: the promises to students assume that your order '
        + 'of two students depends on nobody’s list. That a dishonest ranking never pays you, nobody promises.'],
    },
    sees: {
      title: 'Who sees what?',
      texts: [
        'Lists: to the office’s own code the portal shows no list; but the office made the students’ codes, and whoever has a student’s '
          + 'code, or may read the database, can read that student’s list. The office sees whether a list is empty. From the stage '
          + '“Ranking” on, lecturers see who chose which of their own projects, without positions.',
        'Rankings: the portal shows a ranking to the code of its lecturer alone, not to students, other lecturers or the office’s own '
          + 'code. The office sees which lecturers still have to rank.',
        'Results: students see their own project, lecturers who has theirs, the office who has what. They tell a little more: whoever '
          + 'misses a project knows that all its places, or all its lecturer’s, went to students ranked higher; and a lecturer who ranked '
          + 'somebody first, and doesn’t get this student, knows that the project that the student got stands higher on the student’s '
          + 'list.',
      ],
    },
    fill: {
      title: 'What if a lecturer makes no ranking?',
      texts: ['The office can have it filled in: that lecturer’s applicants are then ranked by their IDs, compared sign by sign from the '
        + 'left. This favours low IDs: if these are matriculation numbers, the same, mostly older, students with every such lecturer. With '
        + 'IDs by chance it favours nobody. Until the results are published, the lecturer can replace such a ranking.'],
    },
    codes: {
      title: 'Who could act as somebody else?',
      texts: [
        'A code is all that the portal asks for. The office made the codes, so whoever keeps the file of codes could sign in as anybody, '
          + 'see what that person sees, and change a list or ranking while that is possible.',
        'Whoever can read the database file, or a copy of it, can read all lists, rankings and codes.',
      ],
    },
    game: {
      title: 'Can it be gamed?',
      texts: [
        'Not by a student’s list: whichever projects it has, no other order of them, and no shorter list of some of them, gives one that '
          + 'the student likes better. This is mathematically proven, whatever others list. It assumes that no lecturer’s order of two '
          + `students depends on anybody’s list. If a student likes more than ${longestList} projects, no rule says which ${longestList} `
          + 'to list.',
        'A group of students can agree on lists so that some of them gain, but never all. Of lecturers nothing of the kind is proven.',
      ],
    },
    waiting: {
      title: 'Does it pay to wait for a second round?',
      texts: ['If the list has every project that the student would take, waiting for the second round gains nothing: whoever gets none of '
        + 'them finds none of them then, because they, or their lecturers, are full. And there may be no second round.'],
    },
    why: {
      title: 'Why did this student get nothing?',
      texts: ['The office’s results tell two cases apart: “no list”: the student saved none, or an empty one; “list, but no place”: for '
        + 'each project on it, all its places, or all its lecturer’s, went to students ranked higher; with the same rankings and the '
        + 'others’ lists as they were, no other list would have got one of them. Which projects these were, only the student’s own page '
        + 'shows.'],
    },
    fair: {
      title: 'Is it fair?',
      texts: ['Nobody gains by being early, and the office can’t change a result. What decides is how lecturers rank, which the portal '
        + 'doesn’t judge. One rule favours some people without a reason: filling in by ID.'],
    },
    proven: {
      title: 'What is proven, and what is trusted?',
      texts: ['Proven by machine, for the portal’s program: each published result is within all places, of the kind described here, and '
        + 'the best such for students; and what the portal tells somebody depends on nothing that this person may not see, as long as it '
        + 'answers every request. Trusted are the definitions, the tools that prove and build, the machine and its disk. Nothing is proven '
        + 'of this page, of the web server, and of what people do who hold codes or the database file.'],
    },
  },
  sheetTitle: 'How projects are allocated: answers on one page',
  sheetState: (place, status) =>
    `Where the year stands: ${place}. ${students(status.students)}, ${projects(status.projects)}, ${lecturers(status.lecturers)}.`,
  sheetResult: (assigned, none, list) =>
    `With a project: ${students(assigned)}. Without a list: ${none}. With a list, but without a project: ${list}.`,
  sheetPrinted: (when, host) => `${host}, printed on ${when}.`,
});
