// A module without tokens. In this folder: ../slangrun check empty
