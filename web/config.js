// What may differ from one portal to another: the portal's limits. docs/FORMATS.md and docs/RULES.md have them.

// The projects on a student's list.
export const longestList = 20;
// The bytes of a file.
export const largestFile = 1_048_576;
// The letters of a code and of a key, and the bytes of a name or title.
export const shortestCode = 8;
export const longestCode = 40;
export const longestKey = 16;
export const longestName = 160;
// The rows of each roll, and the places of a project or lecturer.
export const mostRows = { lecturers: 300, projects: 1_000, students: 2_000 };
export const largestCapacity = 200;
